;; Each operator on 64-bit integers at its edges.
;; ends finished
(module
  (import "liblog" "note" (func $note (param i64)))
  (func (export "_start")
    (call $note (i64.clz (i64.const 0)))  ;; -> note 64
    (call $note (i64.clz (i64.const 1)))  ;; -> note 63
    (call $note (i64.clz (i64.const -1)))  ;; -> note 0
    (call $note (i64.ctz (i64.const 0)))  ;; -> note 64
    (call $note (i64.ctz (i64.const 0x8000000000000000)))  ;; -> note 63
    (call $note (i64.ctz (i64.const -1)))  ;; -> note 0
    (call $note (i64.popcnt (i64.const 0)))  ;; -> note 0
    (call $note (i64.popcnt (i64.const -1)))  ;; -> note 64
    (call $note (i64.popcnt (i64.const 0x8000000000000001)))  ;; -> note 2
    (call $note (i64.add (i64.const 0x7fffffffffffffff) (i64.const 1)))  ;; -> note -9223372036854775808
    (call $note (i64.add (i64.const -1) (i64.const 1)))  ;; -> note 0
    (call $note (i64.sub (i64.const 0x8000000000000000) (i64.const 1)))  ;; -> note 9223372036854775807
    (call $note (i64.sub (i64.const 3) (i64.const 5)))  ;; -> note -2
    (call $note (i64.mul (i64.const 0x100000000) (i64.const 0x100000000)))  ;; -> note 0
    (call $note (i64.mul (i64.const 0x8000000000000000) (i64.const -1)))  ;; -> note -9223372036854775808
    (call $note (i64.mul (i64.const 0xffffffff) (i64.const 0xffffffff)))  ;; -> note -8589934591
    (call $note (i64.div_s (i64.const -7) (i64.const 2)))  ;; -> note -3
    (call $note (i64.div_s (i64.const 7) (i64.const -2)))  ;; -> note -3
    (call $note (i64.div_s (i64.const 0x8000000000000000) (i64.const 1)))  ;; -> note -9223372036854775808
    (call $note (i64.div_u (i64.const -7) (i64.const 2)))  ;; -> note 9223372036854775804
    (call $note (i64.div_u (i64.const 0x8000000000000000) (i64.const -1)))  ;; -> note 0
    (call $note (i64.rem_s (i64.const -7) (i64.const 2)))  ;; -> note -1
    (call $note (i64.rem_s (i64.const 7) (i64.const -2)))  ;; -> note 1
    (call $note (i64.rem_s (i64.const 0x8000000000000000) (i64.const -1)))  ;; -> note 0
    (call $note (i64.rem_u (i64.const -7) (i64.const 2)))  ;; -> note 1
    (call $note (i64.rem_u (i64.const 0x8000000000000000) (i64.const -1)))  ;; -> note -9223372036854775808
    (call $note (i64.and (i64.const 0x0ff000000000) (i64.const 0x3c3c00000000)))  ;; -> note 13400297963520
    (call $note (i64.or (i64.const 0x0ff000000000) (i64.const 0x3c3c00000000)))  ;; -> note 70351564308480
    (call $note (i64.xor (i64.const 0x0ff000000000) (i64.const 0x3c3c00000000)))  ;; -> note 56951266344960
    (call $note (i64.shl (i64.const 1) (i64.const 63)))  ;; -> note -9223372036854775808
    (call $note (i64.shl (i64.const 1) (i64.const 64)))  ;; -> note 1
    (call $note (i64.shl (i64.const 3) (i64.const -1)))  ;; -> note -9223372036854775808
    (call $note (i64.shr_s (i64.const 0x8000000000000000) (i64.const 63)))  ;; -> note -1
    (call $note (i64.shr_s (i64.const -5) (i64.const 65)))  ;; -> note -3
    (call $note (i64.shr_u (i64.const 0x8000000000000000) (i64.const 63)))  ;; -> note 1
    (call $note (i64.shr_u (i64.const -5) (i64.const 65)))  ;; -> note 9223372036854775805
    (call $note (i64.rotl (i64.const 0x8000000000000001) (i64.const 1)))  ;; -> note 3
    (call $note (i64.rotl (i64.const 0x8000000000000001) (i64.const 64)))  ;; -> note -9223372036854775807
    (call $note (i64.rotr (i64.const 0x8000000000000001) (i64.const 1)))  ;; -> note -4611686018427387904
    (call $note (i64.rotr (i64.const 0x8000000000000001) (i64.const -1)))  ;; -> note 3
  )
)
