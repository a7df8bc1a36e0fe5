; The heap of a proved crate over malloc, as the toolchain's is on Linux for x86-64. An answer is whether there is a block, and the block,
; both in registers, which C cannot say for Windows. No size of 0 reaches malloc or realloc: that might free a block, or give none.
declare ptr @malloc(i64)
declare ptr @realloc(ptr, i64)
declare void @free(ptr)

define internal i64 @some(i64 %size) {
  %none = icmp eq i64 %size, 0
  %some = select i1 %none, i64 1, i64 %size
  ret i64 %some
}

define internal { i64, i64 } @answer(ptr %block) {
  %there = icmp ne ptr %block, null
  %is_ok = zext i1 %there to i64
  %address = ptrtoint ptr %block to i64
  %half = insertvalue { i64, i64 } poison, i64 %is_ok, 0
  %answer = insertvalue { i64, i64 } %half, i64 %address, 1
  ret { i64, i64 } %answer
}

define { i64, i64 } @rattle_alloc(i64 %size, i64 %align) {
  %some = call i64 @some(i64 %size)
  %block = call ptr @malloc(i64 %some)
  %answer = call { i64, i64 } @answer(ptr %block)
  ret { i64, i64 } %answer
}

define { i64, i64 } @rattle_realloc(ptr %old, i64 %kept, i64 %size, i64 %align) {
  %some = call i64 @some(i64 %size)
  %block = call ptr @realloc(ptr %old, i64 %some)
  %answer = call { i64, i64 } @answer(ptr %block)
  ret { i64, i64 } %answer
}

define void @rattle_dealloc(ptr %block) {
  call void @free(ptr %block)
  ret void
}
