/// The same for an array, or a container of {items} in one piece.
template <{types}>
[[nodiscard]] auto {name}({parameters}) {
    {asserts}
    return {name}({passed});
}
