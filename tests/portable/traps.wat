;; Reads behind its memory where the first byte of its input is `1`, and else calls without end.
(module
  (import "env" "read" (func $read (param i32 i64 i64) (result i64)))
  (memory (export "memory") 1)
  (func $deeper (param i32) (result i32) (i32.add (i32.const 1) (call $deeper (local.get 0))))
  (func (export "main") (param i32 i64) (result i32)
    (drop (call $read (i32.const 0) (i64.const 0) (i64.const 1)))
    (if (i32.eq (i32.load8_u (i32.const 0)) (i32.const 49)) (then (return (i32.load (i32.const 65536)))))
    (call $deeper (i32.const 0))))
