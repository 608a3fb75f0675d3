
; The C entries over the functions that the crates export, which take each slice as C does: where it lies, and its length.
define i32 @ferrulique_run(ptr %file, i64 %file_len, ptr %marks, i64 %marks_len, ptr %out, i64 %out_len, ptr %report, i64 %report_len) {
  %code = call i32 @"ring_c::ferrulique_run"(ptr %file, i64 %file_len, ptr %marks, i64 %marks_len, ptr %out, i64 %out_len, ptr %report, i64 %report_len)
  ret i32 %code
}

define i64 @ferrulique_race(ptr %file, i64 %file_len) {
  %answer = call i64 @"races_c::ferrulique_race"(ptr %file, i64 %file_len)
  ret i64 %answer
}
