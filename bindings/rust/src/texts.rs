//! The messages of errors.

/// Makes an enum an error with these messages, one for each case. A constant's name in braces is its number.
macro_rules! error_texts {
    ($error:ident { $($case:ident => $text:literal,)* }) => {
        impl std::fmt::Display for $error {
            fn fmt(&self, f: &mut std::fmt::Formatter<'_>) -> std::fmt::Result {
                match self {
                    $($error::$case => write!(f, $text),)*
                }
            }
        }

        impl std::error::Error for $error {}
    };
}

pub(crate) use error_texts;
