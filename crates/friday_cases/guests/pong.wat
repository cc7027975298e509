;; Takes a datagram and sends it back to its sender, again and again.
(module
  (import "liblog" "send" (func $send (param i32 i32 i32) (result i32)))
  (import "liblog" "recv" (func $recv (param i32 i32 i32) (result i32)))
  (memory 1)
  (func (export "_start") (local $length i32)
    (loop
      (local.set $length (call $recv (i32.const 64) (i32.const 16) (i32.const 32)))
      (drop (call $send (i32.load (i32.const 32)) (i32.const 64) (local.get $length)))
      (br 0)
    )
  )
)
