;; br_table at each of its labels and past the last; br and br_if out of blocks, back to loops and with a value.
;; ends finished
(module
  (import "liblog" "note" (func $note (param i64)))
  (func $which (param i32) (result i64)
    (block $default
      (block $two
        (block $one
          (block $zero
            (br_table $zero $one $two $default (local.get 0))
          )
          (return (i64.const 100))
        )
        (return (i64.const 101))
      )
      (return (i64.const 102))
    )
    (i64.const 103)
  )
  (func $lone (param i32) (result i64)
    (block (br_table 0 (local.get 0)))
    (i64.const 7)
  )
  (func $carried (param i32) (result i64)
    (block $outer (result i64)
      (i64.add (i64.const 1000)
        (block $inner (result i64)
          (br_table $inner $outer (i64.const 5) (local.get 0))
        )
      )
    )
  )
  (func $sum (param $n i64) (result i64) (local $all i64)
    (loop $again
      (local.set $all (i64.add (local.get $all) (local.get $n)))
      (local.set $n (i64.sub (local.get $n) (i64.const 1)))
      (br_if $again (i64.ne (local.get $n) (i64.const 0)))
    )
    (local.get $all)
  )
  (func $early (param i32) (result i64)
    (i64.add (i64.const 1)
      (block (result i64)
        (i64.add (i64.const 20) (br_if 0 (i64.const 3) (local.get 0)))
      )
    )
  )
  (func (export "_start")
    (call $note (call $which (i32.const 0)))  ;; -> note 100
    (call $note (call $which (i32.const 1)))  ;; -> note 101
    (call $note (call $which (i32.const 2)))  ;; -> note 102
    (call $note (call $which (i32.const 3)))  ;; -> note 103
    (call $note (call $which (i32.const 4)))  ;; -> note 103
    (call $note (call $which (i32.const 0x80000000)))  ;; -> note 103
    (call $note (call $which (i32.const -1)))  ;; -> note 103
    (call $note (call $lone (i32.const 0)))  ;; -> note 7
    (call $note (call $lone (i32.const -1)))  ;; -> note 7
    (call $note (call $carried (i32.const 0)))  ;; -> note 1005
    (call $note (call $carried (i32.const 1)))  ;; -> note 5
    (call $note (call $sum (i64.const 100)))  ;; -> note 5050
    (call $note (call $early (i32.const 0)))  ;; -> note 24
    (call $note (call $early (i32.const 1)))  ;; -> note 4
    (if (i32.const 0) (then (call $note (i64.const 1))) (else (call $note (i64.const 2))))  ;; -> note 2
    (if (i32.const 2) (then (call $note (i64.const 3))))  ;; -> note 3
    (if (i32.const 0) (then (call $note (i64.const 4))))
  )
)
