;; Each store at the last place of memory where it fits, and what the last eight bytes are after it.
;; ends finished
(module
  (import "liblog" "note" (func $note (param i64)))
  (memory 1)
  (func $last (call $note (i64.load (i32.const 65528))))
  (func $clear (i64.store (i32.const 65528) (i64.const 0)))
  (func (export "_start")
    (i64.store (i32.const 65528) (i64.const 0x0123456789abcdef))
    (call $last)  ;; -> note 0x0123456789abcdef
    (i32.store8 (i32.const 65535) (i32.const 0xffffff80))
    (call $last)  ;; -> note 0x8023456789abcdef
    (call $clear)
    (i32.store16 (i32.const 65534) (i32.const 0x12348765))
    (call $last)  ;; -> note 0x8765000000000000
    (call $clear)
    (i32.store (i32.const 65532) (i32.const 0x12348765))
    (call $last)  ;; -> note 0x1234876500000000
    (call $clear)
    (i64.store8 (i32.const 65535) (i64.const 0x1234567890abcdef))
    (call $last)  ;; -> note 0xef00000000000000
    (call $clear)
    (i64.store16 (i32.const 65534) (i64.const 0x1234567890abcdef))
    (call $last)  ;; -> note 0xcdef000000000000
    (call $clear)
    (i64.store32 (i32.const 65532) (i64.const 0x1234567890abcdef))
    (call $last)  ;; -> note 0x90abcdef00000000
    (call $clear)
    (i32.store8 offset=65535 (i32.const 0) (i32.const 1))
    (call $last)  ;; -> note 0x0100000000000000
    ;; The bytes in front stay as they were.
    (call $note (i64.load (i32.const 65520)))  ;; -> note 0
  )
)
