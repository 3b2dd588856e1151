
#[test]
fn line_{number}() {
    crate::line_values::show({number}, || {call}, || {wrong}, || {right});
}
