;; The operators on the signed number of the lowest bits: each with a middle value, the sign's bit alone, the bit above
;; it alone, and all ones.
;; ends finished
(module
  (import "liblog" "note" (func $note (param i64)))
  (func $say (param i32) (call $note (i64.extend_i32_s (local.get 0))))
  (func (export "_start")
    (call $say (i32.extend8_s (i32.const 384)))  ;; -> note -128
    (call $say (i32.extend8_s (i32.const 0x1234567f)))  ;; -> note 127
    (call $say (i32.extend8_s (i32.const 128)))  ;; -> note -128
    (call $say (i32.extend8_s (i32.const 256)))  ;; -> note 0
    (call $say (i32.extend8_s (i32.const -1)))  ;; -> note -1
    (call $say (i32.extend16_s (i32.const 0x18000)))  ;; -> note -32768
    (call $say (i32.extend16_s (i32.const 0x12347fff)))  ;; -> note 32767
    (call $say (i32.extend16_s (i32.const 32768)))  ;; -> note -32768
    (call $say (i32.extend16_s (i32.const 0x10000)))  ;; -> note 0
    (call $say (i32.extend16_s (i32.const -1)))  ;; -> note -1
    (call $note (i64.extend8_s (i64.const 255)))  ;; -> note -1
    (call $note (i64.extend8_s (i64.const 0x123456789abcde7f)))  ;; -> note 127
    (call $note (i64.extend8_s (i64.const 128)))  ;; -> note -128
    (call $note (i64.extend8_s (i64.const 256)))  ;; -> note 0
    (call $note (i64.extend8_s (i64.const -1)))  ;; -> note -1
    (call $note (i64.extend16_s (i64.const 32767)))  ;; -> note 32767
    (call $note (i64.extend16_s (i64.const 0x123456789abc8001)))  ;; -> note -32767
    (call $note (i64.extend16_s (i64.const 32768)))  ;; -> note -32768
    (call $note (i64.extend16_s (i64.const 0x10000)))  ;; -> note 0
    (call $note (i64.extend16_s (i64.const -1)))  ;; -> note -1
    (call $note (i64.extend32_s (i64.const 0x80000000)))  ;; -> note -2147483648
    (call $note (i64.extend32_s (i64.const 0x123456787fffffff)))  ;; -> note 2147483647
    (call $note (i64.extend32_s (i64.const 0x100000000)))  ;; -> note 0
    (call $note (i64.extend32_s (i64.const -1)))  ;; -> note -1
  )
)
