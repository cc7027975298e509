;; call_indirect of functions of the module and of an import, at the first and the last element; types are
;; compared by their form, and a later segment lies over an earlier one.
;; ends finished
(module
  (type $number (func (result i64)))
  (type $same (func (result i64)))
  (type $taker (func (param i64)))
  (import "liblog" "note" (func $note (param i64)))
  (table 4 funcref)
  (elem (i32.const 0) $one $one $one)
  (elem (i32.const 2) $two $note)
  (func $one (type $number) (i64.const 1))
  (func $two (type $number) (i64.const 2))
  (func (export "_start")
    (call $note (call_indirect (type $number) (i32.const 0)))  ;; -> note 1
    (call $note (call_indirect (type $same) (i32.const 1)))  ;; -> note 1
    (call $note (call_indirect (type $number) (i32.const 2)))  ;; -> note 2
    (call_indirect (type $taker) (i64.const 33) (i32.const 3))  ;; -> note 33
  )
)
