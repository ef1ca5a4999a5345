; What the kit's code for texts in UTF-8 asks of an x86 processor by name (pshufb), as plain code: tools/wasm/make puts it in place of that.
; byte K of the result is 0 if bit 7 of byte K of the mask is set, else the byte of the table that its low four bits number
define internal <16 x i8> @shuffled_bytes(<16 x i8> %table, <16 x i8> %mask) {
begin:
  %room = alloca [16 x i8], align 16
  store <16 x i8> %table, ptr %room, align 16
  br label %each
each:
  %at = phi i32 [ 0, %begin ], [ %next, %each ]
  %made = phi <16 x i8> [ zeroinitializer, %begin ], [ %with, %each ]
  %number = extractelement <16 x i8> %mask, i32 %at
  %low = and i8 %number, 15
  %index = zext i8 %low to i64
  %place = getelementptr i8, ptr %room, i64 %index
  %found = load i8, ptr %place, align 1
  %is_none = icmp slt i8 %number, 0
  %byte = select i1 %is_none, i8 0, i8 %found
  %with = insertelement <16 x i8> %made, i8 %byte, i32 %at
  %next = add i32 %at, 1
  %ends = icmp eq i32 %next, 16
  br i1 %ends, label %end, label %each
end:
  ret <16 x i8> %with
}
