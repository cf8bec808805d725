//! Stand-ins for three macros that the sources use.

/// `impl T { pub fn new(fields); }` builds T from its fields; a constructor with a body stands as it is.
#[macro_export]
macro_rules! pickleable_new {
    (impl $type:ident {
        $(#[$meta:meta])*
        $vis:vis fn $new:ident($($field:ident: $field_type:ty),* $(,)?);
    }) => {
        impl $type {
            $(#[$meta])*
            $vis fn $new($($field: $field_type),*) -> Self {
                Self { $($field),* }
            }
        }
    };
    (impl $type:ident {
        $(#[$meta:meta])*
        $vis:vis fn $new:ident($($field:ident: $field_type:ty),* $(,)?) -> $result:ty $body:block
    }) => {
        impl $type {
            $(#[$meta])*
            $vis fn $new($($field: $field_type),*) -> $result $body
        }
    };
}

#[macro_export]
macro_rules! imag {
    ($value:expr) => {
        num_complex::Complex64::new(0f64, $value)
    };
}

#[macro_export]
macro_rules! real {
    ($value:expr) => {
        num_complex::Complex64::new($value, 0f64)
    };
}

/// A type of an unpublished file, with those of its fields that published files name. Only texts depend on how
/// it is written.
#[macro_export]
macro_rules! unpublished {
    ($type:ident { $($field:ident: $field_type:ty),* }) => {
        #[derive(Clone, Debug, PartialEq)]
        pub struct $type {
            $(pub $field: $field_type),*
        }

        impl $crate::quil::Quil for $type {
            fn write(
                &self,
                f: &mut impl std::fmt::Write,
                _fall_back_to_debug: bool,
            ) -> $crate::quil::ToQuilResult<()> {
                write!(f, "{self:?}").map_err(Into::into)
            }
        }
    };
    ($($type:ident),* $(,)?) => {
        $(
            #[derive(Clone, Debug, PartialEq, Eq, Hash)]
            pub struct $type;

            impl $crate::quil::Quil for $type {
                fn write(
                    &self,
                    f: &mut impl std::fmt::Write,
                    _fall_back_to_debug: bool,
                ) -> $crate::quil::ToQuilResult<()> {
                    write!(f, "{self:?}").map_err(Into::into)
                }
            }
        )*
    };
}
