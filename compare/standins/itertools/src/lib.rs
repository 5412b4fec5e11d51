//! A stand-in for the crate of this name: as much of it as the parser uses.

use std::fmt::Display;

pub trait Itertools: Iterator {
    fn find_position<P>(&mut self, mut wanted: P) -> Option<(usize, Self::Item)>
    where
        Self: Sized,
        P: FnMut(&Self::Item) -> bool,
    {
        self.enumerate().find(|(_, item)| wanted(item))
    }
}

impl<I: Iterator> Itertools for I {}

pub fn join<I>(items: I, between: &str) -> String
where
    I: IntoIterator,
    I::Item: Display,
{
    let texts: Vec<String> = items.into_iter().map(|item| item.to_string()).collect();
    texts.join(between)
}
