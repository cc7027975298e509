;; What memory.grow answers, and what memory.size is after it: a memory with no maximum has at most 256 pages.
;; ends finished
(module
  (import "liblog" "note" (func $note (param i64)))
  (memory 1)
  (func $say (param i32) (call $note (i64.extend_i32_s (local.get 0))))
  (func (export "_start")
    (call $say (memory.size))  ;; -> note 1
    (call $say (memory.grow (i32.const 0)))  ;; -> note 1
    (call $say (memory.grow (i32.const 1)))  ;; -> note 1
    (call $say (memory.size))  ;; -> note 2
    (i32.store (i32.const 131068) (i32.const 9))
    (call $say (memory.grow (i32.const 255)))  ;; -> note -1
    (call $say (memory.size))  ;; -> note 2
    (call $say (memory.grow (i32.const -1)))  ;; -> note -1
    (call $say (memory.grow (i32.const 65536)))  ;; -> note -1
    (call $say (memory.grow (i32.const 254)))  ;; -> note 2
    (call $say (memory.size))  ;; -> note 256
    (call $say (memory.grow (i32.const 1)))  ;; -> note -1
    (call $say (memory.grow (i32.const 0)))  ;; -> note 256
    ;; What was there stays, and what is new is zero.
    (call $say (i32.load (i32.const 131068)))  ;; -> note 9
    (call $say (i32.load (i32.const 131072)))  ;; -> note 0
    (i32.store (i32.const 16777212) (i32.const 7))
    (call $say (i32.load (i32.const 16777212)))  ;; -> note 7
  )
)
