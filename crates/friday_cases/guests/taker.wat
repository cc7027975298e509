;; Asks whether a datagram is there, takes the first three bytes of one and no byte of one, asks past its memory,
;; and takes four bytes into the last four.
(module
  (import "liblog" "recv" (func $recv (param i32 i32 i32) (result i32)))
  (import "liblog" "try_recv" (func $try_recv (param i32 i32 i32) (result i32)))
  (memory 1)
  (func (export "_start")
    (drop (call $try_recv (i32.const 64) (i32.const 3) (i32.const 32)))
    (drop (call $recv (i32.const 64) (i32.const 3) (i32.const 32)))
    (drop (call $recv (i32.const 64) (i32.const 0) (i32.const 32)))
    (drop (call $recv (i32.const 65533) (i32.const 4) (i32.const 32)))
    (drop (call $recv (i32.const 65532) (i32.const 4) (i32.const 32)))
  )
)
