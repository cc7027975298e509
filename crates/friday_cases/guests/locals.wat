;; Locals and parameters: locals begin at zero, `tee` leaves what it sets, and each call has its own.
;; ends finished
(module
  (import "liblog" "note" (func $note (param i64)))
  (func $count (param $n i64) (result i64) (local $seen i64)
    (local.set $seen (i64.add (local.get $seen) (i64.const 1)))
    (if (result i64) (i64.eqz (local.get $n))
      (then (local.get $seen))
      (else (i64.add (local.get $seen) (call $count (i64.sub (local.get $n) (i64.const 1))))))
  )
  (func $third (param i64 i64 i64) (result i64) (local.get 2))
  (func (export "_start") (local $x i64)
    (call $note (local.get $x))  ;; -> note 0
    (call $note (local.tee $x (i64.const 5)))  ;; -> note 5
    (call $note (local.get $x))  ;; -> note 5
    (call $note (call $count (i64.const 9)))  ;; -> note 10
    (call $note (call $third (i64.const 1) (i64.const 2) (i64.const 3)))  ;; -> note 3
    (call $note (select (i64.const 1) (i64.const 2) (i32.const -1)))  ;; -> note 1
    (call $note (select (i64.const 1) (i64.const 2) (i32.const 0)))  ;; -> note 2
    (drop (i64.const 8))
    nop
    (return)
    unreachable
  )
)
