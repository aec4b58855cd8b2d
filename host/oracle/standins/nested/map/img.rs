//! Stand-in for nested/map/img: nothing of it is reached.

use std::{error::Error, io::Write, ops::RangeInclusive, path::Path};

use colorous::Gradient;
use mapproj::CanonicalProjection;

use super::{mom::Mom, skymap::SkyMap};

#[derive(Clone, Copy, Debug)]
pub enum ColorMapFunctionType {}

#[derive(Clone, Copy, Debug)]
pub enum PosConversion {}

pub trait Val {}
impl Val for u32 {}
impl Val for f64 {}

type Bounds = Option<(RangeInclusive<f64>, RangeInclusive<f64>)>;
type Drawn = Result<(), Box<dyn Error>>;

never_called! {
    pub fn show_with_default_app(path: &str) -> Result<(), std::io::Error>;
}

pub fn to_mom_png_file<'a, P: CanonicalProjection, W: AsRef<Path>, M: Mom<'a>>(
    _mom: &'a M,
    _img_size: (u16, u16),
    _proj: Option<P>,
    _proj_center: Option<(f64, f64)>,
    _proj_bounds: Bounds,
    _pos_convert: Option<PosConversion>,
    _color_map: Option<Gradient>,
    _color_map_func_type: Option<ColorMapFunctionType>,
    _path: W,
    _view: bool,
) -> Drawn {
    unimplemented!()
}

pub fn to_mom_png<'a, P: CanonicalProjection, W: Write, M: Mom<'a>>(
    _mom: &'a M,
    _img_size: (u16, u16),
    _proj: Option<P>,
    _proj_center: Option<(f64, f64)>,
    _proj_bounds: Bounds,
    _pos_convert: Option<PosConversion>,
    _color_map: Option<Gradient>,
    _color_map_func_type: Option<ColorMapFunctionType>,
    _writer: W,
) -> Drawn {
    unimplemented!()
}

pub fn to_skymap_png<'a, P: CanonicalProjection, W: Write, S: SkyMap<'a>>(
    _skymap: &'a S,
    _img_size: (u16, u16),
    _proj: Option<P>,
    _proj_center: Option<(f64, f64)>,
    _proj_bounds: Bounds,
    _pos_convert: Option<PosConversion>,
    _color_map: Option<Gradient>,
    _color_map_func_type: Option<ColorMapFunctionType>,
    _writer: W,
) -> Drawn {
    unimplemented!()
}
