;; Counts up at 64, sends the number to process 1, and takes an answer, again and again.
(module
  (import "liblog" "send" (func $send (param i32 i32 i32) (result i32)))
  (import "liblog" "recv" (func $recv (param i32 i32 i32) (result i32)))
  (memory 1)
  (func (export "_start")
    (loop
      (i32.store (i32.const 64) (i32.add (i32.load (i32.const 64)) (i32.const 1)))
      (drop (call $send (i32.const 1) (i32.const 64) (i32.const 4)))
      (drop (call $recv (i32.const 128) (i32.const 4) (i32.const 32)))
      (br 0)
    )
  )
)
