; What processors of 32 bits have no instruction for. tools/targets.py puts those that a module calls into it, for such a processor. No proof covers
; them. A compiler would call functions of its library otherwise, as __umoddi3 and memset.

; What is left of a number that is divided by the number of buckets. That is not 0, and below 2^29, since so many buckets fill a memory of 32 bits.
; By a power of two it takes a mask.
define internal i64 @ic.remainder(i64 %number, i64 %divisor) nounwind noinline {
begin:
  %mask = sub i64 %divisor, 1
  %shared = and i64 %divisor, %mask
  %is.power = icmp eq i64 %shared, 0
  br i1 %is.power, label %power, label %other
power:
  %rest.of.power = and i64 %number, %mask
  ret i64 %rest.of.power
other:
  %upper.half = lshr i64 %number, 32
  %upper = trunc i64 %upper.half to i32
  %lower = trunc i64 %number to i32
  %short = trunc i64 %divisor to i32
  %first = call i32 @ic.remainder.of.bits(i32 0, i32 %upper, i32 %short)
  %second = call i32 @ic.remainder.of.bits(i32 %first, i32 %lower, i32 %short)
  %rest = zext i32 %second to i64
  ret i64 %rest
}

; The same on a processor that divides numbers of 32 bits: by less than 2^16 it divides three times.
define internal i64 @ic.remainder.divided(i64 %number, i64 %divisor) nounwind noinline {
begin:
  %mask = sub i64 %divisor, 1
  %shared = and i64 %divisor, %mask
  %is.power = icmp eq i64 %shared, 0
  br i1 %is.power, label %power, label %other
power:
  %rest.of.power = and i64 %number, %mask
  ret i64 %rest.of.power
other:
  %upper.half = lshr i64 %number, 32
  %upper = trunc i64 %upper.half to i32
  %lower = trunc i64 %number to i32
  %short = trunc i64 %divisor to i32
  %first = urem i32 %upper, %short
  %is.small = icmp ult i32 %short, 65536
  br i1 %is.small, label %small, label %large
small:
  %first.shifted = shl i32 %first, 16
  %middle = lshr i32 %lower, 16
  %with.middle = or i32 %first.shifted, %middle
  %second = urem i32 %with.middle, %short
  %second.shifted = shl i32 %second, 16
  %lowest = and i32 %lower, 65535
  %with.lowest = or i32 %second.shifted, %lowest
  %third = urem i32 %with.lowest, %short
  %rest.of.small = zext i32 %third to i64
  ret i64 %rest.of.small
large:
  %last = call i32 @ic.remainder.of.bits(i32 %first, i32 %lower, i32 %short)
  %rest = zext i32 %last to i64
  ret i64 %rest
}

; What is left of 2^32 times the rest, and the bits, divided bit by bit, the highest first. The rest is below the divisor.
define internal i32 @ic.remainder.of.bits(i32 %rest, i32 %bits, i32 %divisor) nounwind noinline {
begin:
  br label %bit
bit:
  %at = phi i32 [ %rest, %begin ], [ %smaller, %bit ]
  %others = phi i32 [ %bits, %begin ], [ %fewer, %bit ]
  %count = phi i32 [ 32, %begin ], [ %left, %bit ]
  %doubled = shl i32 %at, 1
  %highest = lshr i32 %others, 31
  %larger = or i32 %doubled, %highest
  %without = sub i32 %larger, %divisor
  %has.room = icmp uge i32 %larger, %divisor
  %smaller = select i1 %has.room, i32 %without, i32 %larger
  %fewer = shl i32 %others, 1
  %left = sub i32 %count, 1
  %is.last = icmp eq i32 %left, 0
  br i1 %is.last, label %done, label %bit
done:
  ret i32 %smaller
}

; Writes zeros, as many bytes as said: by eight where they begin and end at a multiple of eight.
define internal void @ic.clear(ptr %to, i8 %zero, i64 %count, i1 %is.volatile) nounwind noinline {
begin:
  %address = ptrtoint ptr %to to i32
  %length = trunc i64 %count to i32
  %end = getelementptr i8, ptr %to, i32 %length
  %both = or i32 %address, %length
  %odd = and i32 %both, 7
  %is.even = icmp eq i32 %odd, 0
  br i1 %is.even, label %words, label %bytes
words:
  %word = phi ptr [ %to, %begin ], [ %word.behind, %more.words ]
  %are.words.done = icmp eq ptr %word, %end
  br i1 %are.words.done, label %done, label %more.words
more.words:
  store i64 0, ptr %word, align 8
  %word.behind = getelementptr i8, ptr %word, i32 8
  br label %words
bytes:
  %byte = phi ptr [ %to, %begin ], [ %byte.behind, %more.bytes ]
  %are.bytes.done = icmp eq ptr %byte, %end
  br i1 %are.bytes.done, label %done, label %more.bytes
more.bytes:
  store i8 0, ptr %byte
  %byte.behind = getelementptr i8, ptr %byte, i32 1
  br label %bytes
done:
  ret void
}

; Copies bytes, as many as said, between parts of the memory that do not overlap.
define internal void @ic.copy(ptr %to, ptr %from, i64 %count, i1 %is.volatile) nounwind noinline {
begin:
  %end = getelementptr i8, ptr %to, i64 %count
  %is.none = icmp eq i64 %count, 0
  br i1 %is.none, label %done, label %next
next:
  %at = phi ptr [ %to, %begin ], [ %behind, %next ]
  %source = phi ptr [ %from, %begin ], [ %source.behind, %next ]
  %byte = load i8, ptr %source
  store i8 %byte, ptr %at
  %behind = getelementptr i8, ptr %at, i64 1
  %source.behind = getelementptr i8, ptr %source, i64 1
  %is.last = icmp eq ptr %behind, %end
  br i1 %is.last, label %done, label %next
done:
  ret void
}
