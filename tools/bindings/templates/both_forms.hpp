{comment}
template <{types}> [[nodiscard]] {constant}auto {name}({parameters}) {
    if constexpr ({uses}) {
        {signed}
    } else {
        {unsigned}
    }
}
