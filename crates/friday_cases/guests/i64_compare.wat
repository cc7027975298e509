;; Each comparison of 64-bit integers, where the signed and the unsigned order differ.
;; ends finished
(module
  (import "liblog" "note" (func $note (param i64)))
  (func $say (param i32) (call $note (i64.extend_i32_s (local.get 0))))
  (func (export "_start")
    (call $say (i64.eqz (i64.const 0)))  ;; -> note 1
    (call $say (i64.eqz (i64.const 0x8000000000000000)))  ;; -> note 0
    (call $say (i64.eq (i64.const -1) (i64.const 0xffffffffffffffff)))  ;; -> note 1
    (call $say (i64.eq (i64.const 0) (i64.const 0x8000000000000000)))  ;; -> note 0
    (call $say (i64.ne (i64.const 0) (i64.const 0x8000000000000000)))  ;; -> note 1
    (call $say (i64.ne (i64.const 7) (i64.const 7)))  ;; -> note 0
    (call $say (i64.lt_s (i64.const 0x8000000000000000) (i64.const 0)))  ;; -> note 1
    (call $say (i64.lt_s (i64.const 0x7fffffffffffffff) (i64.const 0x8000000000000000)))  ;; -> note 0
    (call $say (i64.lt_s (i64.const 5) (i64.const 5)))  ;; -> note 0
    (call $say (i64.lt_u (i64.const 0x8000000000000000) (i64.const 0)))  ;; -> note 0
    (call $say (i64.lt_u (i64.const 0x7fffffffffffffff) (i64.const 0x8000000000000000)))  ;; -> note 1
    (call $say (i64.lt_u (i64.const 5) (i64.const 5)))  ;; -> note 0
    (call $say (i64.gt_s (i64.const 0x8000000000000000) (i64.const 0)))  ;; -> note 0
    (call $say (i64.gt_s (i64.const 0x7fffffffffffffff) (i64.const 0x8000000000000000)))  ;; -> note 1
    (call $say (i64.gt_s (i64.const 5) (i64.const 5)))  ;; -> note 0
    (call $say (i64.gt_u (i64.const 0x8000000000000000) (i64.const 0)))  ;; -> note 1
    (call $say (i64.gt_u (i64.const 0x7fffffffffffffff) (i64.const 0x8000000000000000)))  ;; -> note 0
    (call $say (i64.gt_u (i64.const 5) (i64.const 5)))  ;; -> note 0
    (call $say (i64.le_s (i64.const 0x8000000000000000) (i64.const 0)))  ;; -> note 1
    (call $say (i64.le_s (i64.const 0x7fffffffffffffff) (i64.const 0x8000000000000000)))  ;; -> note 0
    (call $say (i64.le_s (i64.const 5) (i64.const 5)))  ;; -> note 1
    (call $say (i64.le_u (i64.const 0x8000000000000000) (i64.const 0)))  ;; -> note 0
    (call $say (i64.le_u (i64.const 0x7fffffffffffffff) (i64.const 0x8000000000000000)))  ;; -> note 1
    (call $say (i64.le_u (i64.const 5) (i64.const 5)))  ;; -> note 1
    (call $say (i64.ge_s (i64.const 0x8000000000000000) (i64.const 0)))  ;; -> note 0
    (call $say (i64.ge_s (i64.const 0x7fffffffffffffff) (i64.const 0x8000000000000000)))  ;; -> note 1
    (call $say (i64.ge_s (i64.const 5) (i64.const 5)))  ;; -> note 1
    (call $say (i64.ge_u (i64.const 0x8000000000000000) (i64.const 0)))  ;; -> note 1
    (call $say (i64.ge_u (i64.const 0x7fffffffffffffff) (i64.const 0x8000000000000000)))  ;; -> note 0
    (call $say (i64.ge_u (i64.const 5) (i64.const 5)))  ;; -> note 1
  )
)
