;; Globals have their initial values at first, and keep what is set.
;; ends finished
(module
  (import "liblog" "note" (func $note (param i64)))
  (global $small (mut i32) (i32.const -7))
  (global $large (mut i64) (i64.const 0x8000000000000000))
  (global $fixed i64 (i64.const 12))
  (func $say (param i32) (call $note (i64.extend_i32_s (local.get 0))))
  (func (export "_start")
    (call $say (global.get $small))  ;; -> note -7
    (call $note (global.get $large))  ;; -> note -9223372036854775808
    (call $note (global.get $fixed))  ;; -> note 12
    (global.set $small (i32.const 0x80000000))
    (global.set $large (i64.sub (global.get $large) (i64.const 1)))
    (call $say (global.get $small))  ;; -> note -2147483648
    (call $note (global.get $large))  ;; -> note 9223372036854775807
    (call $note (global.get $fixed))  ;; -> note 12
  )
)
