//! Stand-in for nested/map/fits. Reached is FitsError, as the type of an error that writing rows to
//! memory never gives.

pub mod error {
    #[derive(Debug)]
    pub enum FitsError {
        Io(std::io::Error),
        UnexpectedValue {
            keyword: String,
            expected: String,
            actual: String,
        },
        Custom {
            msg: String,
        },
    }

    impl FitsError {
        never_called! {
            pub fn new_custom(msg: String) -> Self;
        }
    }

    impl From<std::io::Error> for FitsError {
        never_called! {
            fn from(error: std::io::Error) -> Self;
        }
    }
}

pub mod read {
    use std::io::{BufReader, Read, Seek};

    use super::error::FitsError;
    use crate::nested::map::skymap::SkyMapEnum;

    never_called! {
        pub fn check_keyword_and_val(r: &[u8], key: &[u8], val: &[u8]) -> Result<(), FitsError>;
        pub fn check_keyword_and_str_val(r: &[u8], key: &[u8], val: &[u8]) -> Result<(), FitsError>;
        pub fn get_str_val_no_quote(r: &[u8]) -> Result<&[u8], FitsError>;
    }
    pub fn next_36_chunks_of_80_bytes<'a, R: Read>(
        _: &'a mut R,
        _: &'a mut [u8; 2880],
    ) -> Result<std::slice::Chunks<'a, u8>, FitsError> {
        unimplemented!()
    }
    pub fn check_keyword_and_parse_uint_val<T>(_: &[u8], _: &[u8]) -> Result<T, FitsError> {
        unimplemented!()
    }
    pub fn parse_uint_val<T>(_: &[u8]) -> Result<T, FitsError> {
        unimplemented!()
    }
    pub fn from_fits_skymap<R: Read + Seek>(_: BufReader<R>) -> Result<SkyMapEnum, FitsError> {
        unimplemented!()
    }
}

pub mod write {
    use std::io::Write;

    use super::error::FitsError;

    never_called! {
        pub fn write_keyword_record(dest: &mut [u8], key: &[u8; 8], val: &str);
        pub fn write_str_keyword_record(dest: &mut [u8], key: &[u8; 8], val: &str);
        pub fn write_str_mandatory_keyword_record(dest: &mut [u8], key: &[u8; 8], val: &str);
        pub fn write_uint_mandatory_keyword_record(dest: &mut [u8], key: &[u8; 8], val: u64);
    }
    pub fn write_primary_hdu<W: Write>(_: W) -> Result<(), FitsError> {
        unimplemented!()
    }
    pub fn write_final_padding<W: Write>(_: W, _: usize) -> Result<(), FitsError> {
        unimplemented!()
    }
    pub fn write_implicit_skymap_fits<W: Write, V>(_: W, _: &[V]) -> Result<(), FitsError> {
        unimplemented!()
    }
    pub fn write_explicit_skymap_fits<W: Write, S>(_: W, _: &S) -> Result<(), FitsError> {
        unimplemented!()
    }
}
