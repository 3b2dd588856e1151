
let {word} = if {word}_len == 0 {
    &{mut}[]
} else {
    // SAFETY: the caller promises that the pointer leads to {promise}.
    unsafe { core::slice::from_raw_parts{suffix}({word}, {word}_len) }
};
