// Pairs of programs, as tests of the documentation: one that the compiler must refuse, with an
// error's code, and one that it must accept. The second one has another token in place of one.
// So nothing but this token is what the compiler refuses.

/// Writes a pair of programs: the fence of the refused one, what is before the token, the token in
/// the refused one and in the accepted one, and what is after it.
macro_rules! pair {
    ($fence:literal ($($head:tt)*) {$bad:tt $good:tt} ($($tail:tt)*)) => {
        #[doc = concat!("```", $fence, "\n", $($head)*, stringify!($bad), $($tail)*, "\n```")]
        #[doc = concat!("```\n", $($head)*, stringify!($good), $($tail)*, "\n```")]
        const _: () = ();
    };
}

/// Writes the pairs of programs that call `is::<Type>()` of `fn is<T: Bound>()`, after some
/// declarations. Each `{bad good}` is a pair: of a type's last argument, of a type, or of a bound.
macro_rules! bounds {
    ($uses:tt) => {};
    ($uses:tt $bound:ident: $ty:ident<$({$bad:tt $good:tt})+>; $($rest:tt)*) => {
        $(pair!("compile_fail,E0277" (bounds!(@is $uses $bound), stringify!($ty), "<")
            {$bad $good} (">>();"));)+
        bounds!($uses $($rest)*);
    };
    ($uses:tt $bound:ident: $ty:ident<'static, $({$bad:tt $good:tt})+>; $($rest:tt)*) => {
        $(pair!("compile_fail,E0277" (bounds!(@is $uses $bound), stringify!($ty), "<'static, ")
            {$bad $good} (">>();"));)+
        bounds!($uses $($rest)*);
    };
    ($uses:tt $bound:ident: {$bad:tt $good:tt}$(<$arg:ty>)?; $($rest:tt)*) => {
        pair!("compile_fail,E0277" (bounds!(@is $uses $bound)) {$bad $good}
            ($("<", stringify!($arg), ">",)? ">();"));
        bounds!($uses $($rest)*);
    };
    ($uses:tt {$bad:tt $good:tt}: $ty:ty; $($rest:tt)*) => {
        pair!("compile_fail,E0277" ($uses, "\nfn is<T: ") {$bad $good}
            (">() {}\nis::<", stringify!($ty), ">();"));
        bounds!($uses $($rest)*);
    };
    (@is $uses:tt $bound:ident) => {
        concat!($uses, "\nfn is<T: ", stringify!($bound), ">() {}\nis::<")
    };
}
