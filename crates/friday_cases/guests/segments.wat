;; Data segments at both ends of memory, at an immutable global, an empty one behind the last byte, and one over another.
;; ends finished
(module
  (import "liblog" "note" (func $note (param i64)))
  (memory 1)
  (table 2 funcref)
  (global $last i32 (i32.const 65535))
  (data (i32.const 0) "\01\02\03\04")
  (data (i32.const 1) "\0a\0b")
  (data (global.get $last) "\77")
  (data (i32.const 65536) "")
  (elem (i32.const 2))
  (elem (i32.const 1) 0)
  (func (export "_start")
    (call $note (i64.load32_u (i32.const 0)))  ;; -> note 0x040b0a01
    (call $note (i64.load8_u (global.get $last)))  ;; -> note 0x77
    (call $note (i64.load8_u (i32.const 65534)))  ;; -> note 0
    (call_indirect (param i64) (i64.const 3) (i32.const 1))  ;; -> note 3
  )
)
