;; Each load at the last place of memory where it fits, by its offset or by its base.
;; The last eight bytes are f8 f9 fa fb fc fd fe 87 (hexadecimal).
;; ends finished
(module
  (import "liblog" "note" (func $note (param i64)))
  (memory 1)
  (data (i32.const 65528) "\f8\f9\fa\fb\fc\fd\fe\87")
  (func $say (param i32) (call $note (i64.extend_i32_s (local.get 0))))
  (func (export "_start")
    (call $say (i32.load (i32.const 65532)))  ;; -> note 0xffffffff87fefdfc
    (call $say (i32.load8_s (i32.const 65535)))  ;; -> note 0xffffffffffffff87
    (call $say (i32.load8_u (i32.const 65535)))  ;; -> note 0x87
    (call $say (i32.load16_s (i32.const 65534)))  ;; -> note 0xffffffffffff87fe
    (call $say (i32.load16_u (i32.const 65534)))  ;; -> note 0x87fe
    (call $note (i64.load (i32.const 65528)))  ;; -> note 0x87fefdfcfbfaf9f8
    (call $note (i64.load8_s (i32.const 65535)))  ;; -> note 0xffffffffffffff87
    (call $note (i64.load8_u (i32.const 65535)))  ;; -> note 0x87
    (call $note (i64.load16_s (i32.const 65534)))  ;; -> note 0xffffffffffff87fe
    (call $note (i64.load16_u (i32.const 65534)))  ;; -> note 0x87fe
    (call $note (i64.load32_s (i32.const 65532)))  ;; -> note 0xffffffff87fefdfc
    (call $note (i64.load32_u (i32.const 65532)))  ;; -> note 0x87fefdfc
    (call $say (i32.load8_u offset=65535 (i32.const 0)))  ;; -> note 0x87
    (call $say (i32.load8_u offset=65500 (i32.const 28)))  ;; -> note 0xf8
    ;; Bytes need not lie at multiples of their width.
    (call $say (i32.load16_u (i32.const 65529)))  ;; -> note 0xfaf9
    (call $say (i32.load8_u (i32.const 0)))  ;; -> note 0
  )
)
