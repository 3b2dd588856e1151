impl Roots for Own {
    fn nth_root(&self, n: u32) -> Own {
        Own(Roots::nth_root(&self.0, n))
    }
}
