//! The names of the parts in other crates.

impl Ratio {
    /// Returns the numerator: another name of [`Ratio::num`].
    ///
    /// # Examples
    ///
    /// ```
    /// use cellarcove::ratio64::Ratio;
    ///
    /// assert_eq!(Ratio::new(6, -4).map(|ratio| ratio.numer()), Ok(-3));
    /// ```
    #[must_use]
    pub const fn numer(&self) -> i64 {
        self.num
    }

    /// Returns the denominator, which is positive: another name of [`Ratio::den`].
    ///
    /// # Examples
    ///
    /// ```
    /// use cellarcove::ratio64::Ratio;
    ///
    /// assert_eq!(Ratio::new(6, -4).map(|ratio| ratio.denom()), Ok(2));
    /// ```
    #[must_use]
    pub const fn denom(&self) -> i64 {
        self.den
    }
}
