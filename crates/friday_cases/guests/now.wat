;; Asks for the time and notes it.
(module
  (import "liblog" "now" (func (result i64)))
  (import "liblog" "note" (func (param i64)))
  (func (export "_start") (call 1 (call 0)))
)
