//! A stand-in for the crate of this name. No result may depend on the order of a hash map, so the
//! standard ones, whose order changes from run to run, serve and test that too. They hash slowly, so where
//! times are taken a hash of the crate's own kind, one addition and one product a number, stands in.

#[cfg(feature = "fx")]
mod fx;

#[cfg(not(feature = "fx"))]
use std::hash::RandomState as Build;
#[cfg(feature = "fx")]
type Build = std::hash::BuildHasherDefault<fx::FxHasher>;

pub type FxHashMap<K, V> = std::collections::HashMap<K, V, Build>;
pub type FxHashSet<T> = std::collections::HashSet<T, Build>;
