;; A declared maximum above 256 counts as 256.
;; ends finished
(module
  (import "liblog" "note" (func $note (param i64)))
  (memory 256 300)
  (func $say (param i32) (call $note (i64.extend_i32_s (local.get 0))))
  (func (export "_start")
    (call $say (memory.grow (i32.const 1)))  ;; -> note -1
    (call $say (memory.grow (i32.const 44)))  ;; -> note -1
    (call $say (memory.size))  ;; -> note 256
  )
)
