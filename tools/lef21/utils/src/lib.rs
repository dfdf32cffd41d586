//! Stands in for layout21utils, of which reading and writing LEF use nothing: the names that lef21 mentions.
pub trait SerdeFile {}
pub enum SerializationFormat {
    Json,
}
pub mod ser {
    #[derive(Debug)]
    pub struct Error;
    impl std::fmt::Display for Error {
        fn fmt(&self, f: &mut std::fmt::Formatter) -> std::fmt::Result {
            write!(f, "serialization")
        }
    }
    impl std::error::Error for Error {}
}
