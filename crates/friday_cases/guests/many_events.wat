;; Notes the numbers from 1 to 10,000.
(module
  (import "liblog" "note" (func $note (param i64)))
  (func (export "_start") (local $i i64)
    (loop $again
      (call $note (local.tee $i (i64.add (local.get $i) (i64.const 1))))
      (br_if $again (i64.lt_u (local.get $i) (i64.const 10000)))
    )
  )
)
