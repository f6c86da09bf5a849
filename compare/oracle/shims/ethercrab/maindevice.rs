//! Stands for ethercrab's maindevice.rs, for dc.rs: a main device without a network. Whatever is sent through it ends in `Error::Internal`.
//! No request of the desk runs dc.rs.

pub struct MainDevice<'sto>(std::marker::PhantomData<&'sto ()>);
