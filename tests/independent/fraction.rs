//! Exact fractions, compared by their cross products.

/// One whole number over another, which is above 0. It is never reduced.
#[derive(Clone, Copy)]
pub struct Fraction {
    over: i128,
    under: i128,
}

impl Fraction {
    pub fn new(over: i128, under: i128) -> Fraction {
        assert!(under > 0, "a fraction of nothing");
        Fraction { over, under }
    }

    pub fn whole(number: i128) -> Fraction {
        Fraction::new(number, 1)
    }

    pub fn less(self, other: Fraction) -> Fraction {
        Fraction::new(self.over * other.under - other.over * self.under, self.under * other.under)
    }

    pub fn times(self, number: i128) -> Fraction {
        Fraction::new(self.over * number, self.under)
    }

    pub fn product(self, other: Fraction) -> Fraction {
        Fraction::new(self.over * other.over, self.under * other.under)
    }

    pub fn divided_by(self, number: i128) -> Fraction {
        Fraction::new(self.over, self.under * number)
    }

    pub fn at_least(self, other: Fraction) -> bool {
        self.over * other.under >= other.over * self.under
    }

    /// The largest whole number that is not above it, by counting up from 0.
    pub fn cut_down(self) -> i128 {
        assert!(self.at_least(Fraction::whole(0)), "a fraction below 0");
        let mut whole = 0;
        while self.at_least(Fraction::whole(whole + 1)) {
            whole += 1;
        }
        whole
    }
}
