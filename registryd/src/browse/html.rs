//! HTML in which each text of a client is escaped. Only `html!` makes it: the markup is a literal of this program, and each value is
//! escaped unless it is HTML already. So no text reaches a page as markup by mistake.
use std::borrow::Cow;
use std::fmt::{self, Display, Formatter, Write};
use std::iter::Sum;

/// A part of a page.
#[derive(Clone, Debug, Default, PartialEq, Eq)]
pub(super) struct Html(String);

/// A value that a page can show.
pub(super) trait Shown {
    fn show(&self, page: &mut Formatter<'_>) -> fmt::Result;
}

/// A value as `html!` writes it.
pub(super) struct Escaped<'v, V: ?Sized>(pub(super) &'v V);

/// Makes HTML of a literal and of values, one for each `{}` in it. The value of an attribute has to be in double quotes. A name in the
/// braces is an error of the compiler, because the literal passes through `concat!`.
macro_rules! html {
    ($markup:literal $(, $value:expr)* $(,)?) => {
        $crate::browse::html::Html::written(format_args!(concat!($markup) $(, $crate::browse::html::Escaped(&$value))*))
    };
}
pub(super) use html;

impl Html {
    /// Makes HTML of what `html!` wrote. Nothing else calls this.
    pub(super) fn written(parts: fmt::Arguments<'_>) -> Html {
        Html(parts.to_string())
    }

    /// Returns the text of a page.
    pub(super) fn into_text(self) -> String {
        self.0
    }

    /// Returns whether it has nothing.
    pub(super) fn is_empty(&self) -> bool {
        self.0.is_empty()
    }
}

impl Sum for Html {
    fn sum<I: Iterator<Item = Html>>(parts: I) -> Html {
        Html(parts.fold(String::new(), |text, part| text + &part.0))
    }
}

impl<V: Shown + ?Sized> Display for Escaped<'_, V> {
    fn fmt(&self, page: &mut Formatter<'_>) -> fmt::Result {
        self.0.show(page)
    }
}

impl Shown for Html {
    fn show(&self, page: &mut Formatter<'_>) -> fmt::Result {
        page.write_str(&self.0)
    }
}

impl Shown for str {
    fn show(&self, page: &mut Formatter<'_>) -> fmt::Result {
        for letter in self.chars() {
            match letter {
                '&' => page.write_str("&amp;")?,
                '<' => page.write_str("&lt;")?,
                '>' => page.write_str("&gt;")?,
                '"' => page.write_str("&quot;")?,
                '\'' => page.write_str("&#39;")?,
                // A control character is an error in HTML (HTML, 13.2.3.5).
                '\n' | '\t' => page.write_char(letter)?,
                letter if letter.is_control() => page.write_char(char::REPLACEMENT_CHARACTER)?,
                letter => page.write_char(letter)?,
            }
        }
        Ok(())
    }
}

impl Shown for String {
    fn show(&self, page: &mut Formatter<'_>) -> fmt::Result {
        self.as_str().show(page)
    }
}

impl Shown for Cow<'_, str> {
    fn show(&self, page: &mut Formatter<'_>) -> fmt::Result {
        self.as_ref().show(page)
    }
}

impl Shown for u64 {
    fn show(&self, page: &mut Formatter<'_>) -> fmt::Result {
        write!(page, "{self}")
    }
}

impl Shown for usize {
    fn show(&self, page: &mut Formatter<'_>) -> fmt::Result {
        write!(page, "{self}")
    }
}

impl<V: Shown + ?Sized> Shown for &V {
    fn show(&self, page: &mut Formatter<'_>) -> fmt::Result {
        (**self).show(page)
    }
}

impl<V: Shown> Shown for Option<V> {
    fn show(&self, page: &mut Formatter<'_>) -> fmt::Result {
        self.as_ref().map_or(Ok(()), |value| value.show(page))
    }
}

#[cfg(test)]
mod tests {
    use super::*;

    #[test]
    fn texts_are_escaped_and_html_is_not() {
        let name = "\"><script>alert('a')</script>&amp;\u{0}\u{1b}\n";
        let shown = html!("<p title=\"{}\">{}</p>", name, html!("<b>{}</b>", String::from("<i>")));
        assert_eq!(
            shown.into_text(),
            "<p title=\"&quot;&gt;&lt;script&gt;alert(&#39;a&#39;)&lt;/script&gt;&amp;amp;\u{fffd}\u{fffd}\n\"><b>&lt;i&gt;</b></p>"
        );
    }

    #[test]
    fn no_letter_of_markup_is_left() {
        let every: String = (0..0x250).filter_map(char::from_u32).collect();
        let shown = html!("{}", every).into_text();
        assert!(!shown.contains(&['<', '>', '"', '\''][..]), "{shown}");
        assert_eq!(shown.matches('&').count(), 5);
    }

    #[test]
    fn values_have_their_forms() {
        assert_eq!(html!("{} {} {}{}", 7_u64, 8_usize, None::<&str>, Some("a")).into_text(), "7 8 a");
        assert_eq!([html!("<br>"), html!("{}", "<")].into_iter().sum::<Html>().into_text(), "<br>&lt;");
        assert!(Html::default().is_empty());
    }
}
