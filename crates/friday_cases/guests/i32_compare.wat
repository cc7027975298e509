;; Each comparison of 32-bit integers, where the signed and the unsigned order differ.
;; ends finished
(module
  (import "liblog" "note" (func $note (param i64)))
  (func $say (param i32) (call $note (i64.extend_i32_s (local.get 0))))
  (func (export "_start")
    (call $say (i32.eqz (i32.const 0)))  ;; -> note 1
    (call $say (i32.eqz (i32.const 0x80000000)))  ;; -> note 0
    (call $say (i32.eq (i32.const -1) (i32.const 0xffffffff)))  ;; -> note 1
    (call $say (i32.eq (i32.const 0) (i32.const 0x80000000)))  ;; -> note 0
    (call $say (i32.ne (i32.const 0) (i32.const 0x80000000)))  ;; -> note 1
    (call $say (i32.ne (i32.const 7) (i32.const 7)))  ;; -> note 0
    (call $say (i32.lt_s (i32.const 0x80000000) (i32.const 0)))  ;; -> note 1
    (call $say (i32.lt_s (i32.const 0x7fffffff) (i32.const 0x80000000)))  ;; -> note 0
    (call $say (i32.lt_s (i32.const 5) (i32.const 5)))  ;; -> note 0
    (call $say (i32.lt_u (i32.const 0x80000000) (i32.const 0)))  ;; -> note 0
    (call $say (i32.lt_u (i32.const 0x7fffffff) (i32.const 0x80000000)))  ;; -> note 1
    (call $say (i32.lt_u (i32.const 5) (i32.const 5)))  ;; -> note 0
    (call $say (i32.gt_s (i32.const 0x80000000) (i32.const 0)))  ;; -> note 0
    (call $say (i32.gt_s (i32.const 0x7fffffff) (i32.const 0x80000000)))  ;; -> note 1
    (call $say (i32.gt_s (i32.const 5) (i32.const 5)))  ;; -> note 0
    (call $say (i32.gt_u (i32.const 0x80000000) (i32.const 0)))  ;; -> note 1
    (call $say (i32.gt_u (i32.const 0x7fffffff) (i32.const 0x80000000)))  ;; -> note 0
    (call $say (i32.gt_u (i32.const 5) (i32.const 5)))  ;; -> note 0
    (call $say (i32.le_s (i32.const 0x80000000) (i32.const 0)))  ;; -> note 1
    (call $say (i32.le_s (i32.const 0x7fffffff) (i32.const 0x80000000)))  ;; -> note 0
    (call $say (i32.le_s (i32.const 5) (i32.const 5)))  ;; -> note 1
    (call $say (i32.le_u (i32.const 0x80000000) (i32.const 0)))  ;; -> note 0
    (call $say (i32.le_u (i32.const 0x7fffffff) (i32.const 0x80000000)))  ;; -> note 1
    (call $say (i32.le_u (i32.const 5) (i32.const 5)))  ;; -> note 1
    (call $say (i32.ge_s (i32.const 0x80000000) (i32.const 0)))  ;; -> note 0
    (call $say (i32.ge_s (i32.const 0x7fffffff) (i32.const 0x80000000)))  ;; -> note 1
    (call $say (i32.ge_s (i32.const 5) (i32.const 5)))  ;; -> note 1
    (call $say (i32.ge_u (i32.const 0x80000000) (i32.const 0)))  ;; -> note 1
    (call $say (i32.ge_u (i32.const 0x7fffffff) (i32.const 0x80000000)))  ;; -> note 0
    (call $say (i32.ge_u (i32.const 5) (i32.const 5)))  ;; -> note 1
  )
)
