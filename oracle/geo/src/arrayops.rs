//! The text's inclusive operators, by name alone: no search uses one.

pub trait AddInclusive<Rhs = Self> {
    type Output;
}

pub trait SubInclusive<Rhs = Self> {
    type Output;
}

pub trait AddAssignInclusive<Rhs = Self> {}

pub trait SubAssignInclusive<Rhs = Self> {}
