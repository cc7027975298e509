;; A memory grows to its declared maximum.
;; ends finished
(module
  (import "liblog" "note" (func $note (param i64)))
  (memory 0 3)
  (func $say (param i32) (call $note (i64.extend_i32_s (local.get 0))))
  (func (export "_start")
    (call $say (memory.size))  ;; -> note 0
    (call $say (memory.grow (i32.const 4)))  ;; -> note -1
    (call $say (memory.grow (i32.const 3)))  ;; -> note 0
    (call $say (memory.grow (i32.const 1)))  ;; -> note -1
    (call $say (memory.size))  ;; -> note 3
  )
)
