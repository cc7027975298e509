;; Each call that is answered whatever the world is: a process of number 0, thread 0 and wall time 0.
;; ends exited 5
(module
  (import "liblog" "note" (func $note (param i64)))
  (import "liblog" "me" (func $me (result i32)))
  (import "liblog" "thread" (func $thread (result i32)))
  (import "liblog" "now" (func $now (result i64)))
  (import "liblog" "sleep_until" (func $sleep_until (param i64) (result i64)))
  (import "liblog" "yield" (func $yield))
  (import "liblog" "exit" (func $exit (param i32)))
  (func (export "_start")
    (call $note (i64.const 0x8000000000000000))  ;; -> note -9223372036854775808
    (call $note (i64.extend_i32_u (call $me)))  ;; -> me = 0
    ;; -> note 0
    (call $note (i64.extend_i32_u (call $thread)))  ;; -> thread = 0
    ;; -> note 0
    (call $note (call $now))  ;; -> now = 0
    ;; -> note 0
    (call $yield)  ;; -> yield
    (call $note (call $sleep_until (i64.const 0)))  ;; -> sleep_until 0 = 0
    ;; -> note 0
    (call $note (call $sleep_until (i64.const -1)))  ;; -> sleep_until -1 = 0
    ;; -> note 0
    (call $exit (i32.const 5))  ;; -> exit 5
    (call $note (i64.const 1))
  )
)
