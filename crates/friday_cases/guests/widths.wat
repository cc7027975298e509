;; The operators between the widths.
;; ends finished
(module
  (import "liblog" "note" (func $note (param i64)))
  (func (export "_start")
    (call $note (i64.extend_i32_s (i32.const 0x80000000)))  ;; -> note -2147483648
    (call $note (i64.extend_i32_s (i32.const 0x7fffffff)))  ;; -> note 2147483647
    (call $note (i64.extend_i32_u (i32.const 0x80000000)))  ;; -> note 2147483648
    (call $note (i64.extend_i32_u (i32.const -1)))  ;; -> note 4294967295
    (call $note (i64.extend_i32_s (i32.wrap_i64 (i64.const 0x123456789))))  ;; -> note 591751049
    (call $note (i64.extend_i32_s (i32.wrap_i64 (i64.const 0x80000000))))  ;; -> note -2147483648
    (call $note (i64.extend_i32_s (i32.wrap_i64 (i64.const 0x100000000))))  ;; -> note 0
  )
)
