;; Each operator on 32-bit integers at its edges.
;; ends finished
(module
  (import "liblog" "note" (func $note (param i64)))
  (func $say (param i32) (call $note (i64.extend_i32_s (local.get 0))))
  (func (export "_start")
    (call $say (i32.clz (i32.const 0)))  ;; -> note 32
    (call $say (i32.clz (i32.const 1)))  ;; -> note 31
    (call $say (i32.clz (i32.const -1)))  ;; -> note 0
    (call $say (i32.ctz (i32.const 0)))  ;; -> note 32
    (call $say (i32.ctz (i32.const 0x80000000)))  ;; -> note 31
    (call $say (i32.ctz (i32.const -1)))  ;; -> note 0
    (call $say (i32.popcnt (i32.const 0)))  ;; -> note 0
    (call $say (i32.popcnt (i32.const -1)))  ;; -> note 32
    (call $say (i32.popcnt (i32.const 0x80000001)))  ;; -> note 2
    (call $say (i32.add (i32.const 0x7fffffff) (i32.const 1)))  ;; -> note -2147483648
    (call $say (i32.add (i32.const -1) (i32.const 1)))  ;; -> note 0
    (call $say (i32.sub (i32.const 0x80000000) (i32.const 1)))  ;; -> note 2147483647
    (call $say (i32.sub (i32.const 3) (i32.const 5)))  ;; -> note -2
    (call $say (i32.mul (i32.const 0x10000) (i32.const 0x10000)))  ;; -> note 0
    (call $say (i32.mul (i32.const 0x80000000) (i32.const -1)))  ;; -> note -2147483648
    (call $say (i32.mul (i32.const 0x12345) (i32.const -3)))  ;; -> note -223695
    (call $say (i32.div_s (i32.const -7) (i32.const 2)))  ;; -> note -3
    (call $say (i32.div_s (i32.const 7) (i32.const -2)))  ;; -> note -3
    (call $say (i32.div_s (i32.const 0x80000000) (i32.const 1)))  ;; -> note -2147483648
    (call $say (i32.div_u (i32.const -7) (i32.const 2)))  ;; -> note 2147483644
    (call $say (i32.div_u (i32.const 0x80000000) (i32.const -1)))  ;; -> note 0
    (call $say (i32.rem_s (i32.const -7) (i32.const 2)))  ;; -> note -1
    (call $say (i32.rem_s (i32.const 7) (i32.const -2)))  ;; -> note 1
    (call $say (i32.rem_s (i32.const 0x80000000) (i32.const -1)))  ;; -> note 0
    (call $say (i32.rem_u (i32.const -7) (i32.const 2)))  ;; -> note 1
    (call $say (i32.rem_u (i32.const 0x80000000) (i32.const -1)))  ;; -> note -2147483648
    (call $say (i32.and (i32.const 0x0ff0) (i32.const 0x3c3c)))  ;; -> note 3120
    (call $say (i32.or (i32.const 0x0ff0) (i32.const 0x3c3c)))  ;; -> note 16380
    (call $say (i32.xor (i32.const 0x0ff0) (i32.const 0x3c3c)))  ;; -> note 13260
    (call $say (i32.shl (i32.const 1) (i32.const 31)))  ;; -> note -2147483648
    (call $say (i32.shl (i32.const 1) (i32.const 32)))  ;; -> note 1
    (call $say (i32.shl (i32.const 3) (i32.const -1)))  ;; -> note -2147483648
    (call $say (i32.shr_s (i32.const 0x80000000) (i32.const 31)))  ;; -> note -1
    (call $say (i32.shr_s (i32.const -5) (i32.const 33)))  ;; -> note -3
    (call $say (i32.shr_u (i32.const 0x80000000) (i32.const 31)))  ;; -> note 1
    (call $say (i32.shr_u (i32.const -5) (i32.const 33)))  ;; -> note 2147483645
    (call $say (i32.rotl (i32.const 0x80000001) (i32.const 1)))  ;; -> note 3
    (call $say (i32.rotl (i32.const 0x80000001) (i32.const 32)))  ;; -> note -2147483647
    (call $say (i32.rotr (i32.const 0x80000001) (i32.const 1)))  ;; -> note -1073741824
    (call $say (i32.rotr (i32.const 0x80000001) (i32.const -1)))  ;; -> note 3
  )
)
