;; A start function that is `_start` too runs twice.
;; ends finished
(module
  (import "liblog" "note" (func $note (param i64)))
  (global $turns (mut i64) (i64.const 0))
  (start $begin)
  (func $begin (export "_start")
    (global.set $turns (i64.add (global.get $turns) (i64.const 1)))
    ;; -> note 1
    (call $note (global.get $turns)))  ;; -> note 2
)
