;; Asks for two random bytes, for none, for one past its memory, and for one more.
(module
  (import "liblog" "random" (func $random (param i32 i32) (result i32)))
  (memory 1)
  (func (export "_start")
    (drop (call $random (i32.const 0) (i32.const 2)))
    (drop (call $random (i32.const 0) (i32.const 0)))
    (drop (call $random (i32.const 65536) (i32.const 1)))
    (drop (call $random (i32.const 0) (i32.const 1)))
  )
)
