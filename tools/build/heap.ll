; The heap of the library on other systems. It is written in LLVM's language, so that its functions return two words, as the
; proved part expects, regardless of the system's C convention. The kit's heap behaves in the same way on Linux: a request of
; zero bytes returns a block, and a failed request returns an address that is not null, because the proved part has no null
; pointers.

@rattle_nothing = internal global i8 0

declare ptr @malloc(i64)
declare ptr @realloc(ptr, i64)
declare void @free(ptr)

; Whether there is a block, and its address.
define internal { i64, i64 } @rattle_found(ptr %block) nounwind {
  %is_null = icmp eq ptr %block, null
  %at = select i1 %is_null, ptr @rattle_nothing, ptr %block
  %is_found = xor i1 %is_null, true
  %ok = zext i1 %is_found to i64
  %address = ptrtoint ptr %at to i64
  %half = insertvalue { i64, i64 } poison, i64 %ok, 0
  %whole = insertvalue { i64, i64 } %half, i64 %address, 1
  ret { i64, i64 } %whole
}

; The alignment divides 16, and malloc aligns blocks to at least 16 bytes.
define internal { i64, i64 } @rattle_alloc(i64 noundef %bytes, i64 noundef %align) nounwind {
  %is_empty = icmp eq i64 %bytes, 0
  %size = select i1 %is_empty, i64 %align, i64 %bytes
  %block = call ptr @malloc(i64 %size)
  %found = call { i64, i64 } @rattle_found(ptr %block)
  ret { i64, i64 } %found
}

define internal { i64, i64 } @rattle_realloc(ptr noundef %old, i64 noundef %kept, i64 noundef %bytes, i64 noundef %align) nounwind {
  %is_empty = icmp eq i64 %bytes, 0
  %size = select i1 %is_empty, i64 %align, i64 %bytes
  %block = call ptr @realloc(ptr %old, i64 %size)
  %found = call { i64, i64 } @rattle_found(ptr %block)
  ret { i64, i64 } %found
}

define internal void @rattle_dealloc(ptr noundef %block) nounwind {
  call void @free(ptr %block)
  ret void
}
