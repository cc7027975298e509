;; Sleeps until 100, notes the time at which it woke, sleeps until -5, and asks for the time.
(module
  (import "liblog" "note" (func $note (param i64)))
  (import "liblog" "now" (func $now (result i64)))
  (import "liblog" "sleep_until" (func $sleep_until (param i64) (result i64)))
  (func (export "_start")
    (call $note (call $sleep_until (i64.const 100)))
    (call $note (call $sleep_until (i64.const -5)))
    (drop (call $now))
  )
)
