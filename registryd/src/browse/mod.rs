//! Pages on which people browse the registry: plain HTML that the server makes, one style, one small script.
mod comparison;
mod contents;
mod deletion;
mod forms;
mod html;
mod images;
mod layers;
mod layout;
mod login;
mod places;
mod platforms;
mod referrers;
mod repositories;
mod sessions;
mod shown;
mod tags;
mod tenants;
mod texts;
mod visit;

pub(crate) mod pages;

pub(crate) use places::{is_page, Place, Reference};
