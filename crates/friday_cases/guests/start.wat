;; The start function runs before `_start`, in the same first burst.
;; ends finished
(module
  (import "liblog" "note" (func $note (param i64)))
  (global $turns (mut i64) (i64.const 40))
  (start $begin)
  (func $begin
    (global.set $turns (i64.add (global.get $turns) (i64.const 1)))
    (call $note (global.get $turns)))
  (func (export "_start")
    ;; -> note 41
    (call $note (i64.add (global.get $turns) (i64.const 1))))  ;; -> note 42
)
