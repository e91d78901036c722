//! tailboardy: the traits of `num-traits` that the copied files use, with the methods that they call.

use std::ops::{Add, Div, Mul, Neg, Rem, Sub};

pub trait Zero: Sized {
    fn zero() -> Self;
}

pub trait One: Sized {
    fn one() -> Self;
}

pub trait Num:
    PartialEq
    + Zero
    + One
    + Add<Output = Self>
    + Sub<Output = Self>
    + Mul<Output = Self>
    + Div<Output = Self>
    + Rem<Output = Self>
{
}

pub trait Bounded {
    fn min_value() -> Self;
    fn max_value() -> Self;
}

pub trait ToPrimitive {
    fn to_f64(&self) -> Option<f64>;
}

pub trait FromPrimitive: Sized {
    fn from_f64(n: f64) -> Option<Self>;
    fn from_usize(n: usize) -> Option<Self>;
}

pub trait NumCast: ToPrimitive {}

pub trait Signed: Num + Neg<Output = Self> {
    fn abs(&self) -> Self;
}

pub trait Float: Num + Copy + PartialOrd + Neg<Output = Self> {
    fn abs(self) -> Self;
    fn exp(self) -> Self;
    fn powf(self, n: Self) -> Self;
}

macro_rules! number {
    ($($t:ty)*) => { $(
        impl Zero for $t {
            fn zero() -> Self {
                0 as $t
            }
        }
        impl One for $t {
            fn one() -> Self {
                1 as $t
            }
        }
        impl Num for $t {}
        impl NumCast for $t {}
        impl Bounded for $t {
            fn min_value() -> Self {
                <$t>::MIN
            }
            fn max_value() -> Self {
                <$t>::MAX
            }
        }
        impl ToPrimitive for $t {
            fn to_f64(&self) -> Option<f64> {
                Some(*self as f64)
            }
        }
        impl FromPrimitive for $t {
            fn from_f64(n: f64) -> Option<Self> {
                Some(n as $t)
            }
            fn from_usize(n: usize) -> Option<Self> {
                Some(n as $t)
            }
        }
    )* };
}

macro_rules! float {
    ($($t:ty)*) => { $(
        impl Signed for $t {
            fn abs(&self) -> Self {
                <$t>::abs(*self)
            }
        }
        impl Float for $t {
            fn abs(self) -> Self {
                <$t>::abs(self)
            }
            fn exp(self) -> Self {
                <$t>::exp(self)
            }
            fn powf(self, n: Self) -> Self {
                <$t>::powf(self, n)
            }
        }
    )* };
}

number! { f64 f32 i8 i16 i32 i64 u8 u16 u32 u64 usize }
float! { f64 f32 }
