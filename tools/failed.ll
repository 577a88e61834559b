; What a program that is compiled without its proof does where one of its checks fails, which ends it by
; the signal SIGILL (4): a sentence goes to standard error (2), and the signal ends the program as before.

target triple = "x86_64-unknown-linux-gnu"

@said = private constant [167 x i8] c"spill: a check in the program failed, which is a bug: please report the command and its input; ./spill prove builds the proved program, in which every check is proved\0A"

@llvm.global_ctors = appending global [1 x { i32, ptr, ptr }] [{ i32, ptr, ptr } { i32 65535, ptr @begin, ptr null }]

declare ptr @signal(i32, ptr)
declare i64 @write(i32, ptr, i64)
declare i32 @raise(i32)

define internal void @begin() {
  %before = call ptr @signal(i32 4, ptr @tell)
  ret void
}

define internal void @tell(i32 %number) {
  %told = call i64 @write(i32 2, ptr @said, i64 167)
  %before = call ptr @signal(i32 4, ptr null)
  %raised = call i32 @raise(i32 4)
  ret void
}
