// Child module of detect/chess/response.rs.
use super::*;

/// One pixel, private there.
pub fn at(img: &[u8], w: usize, x: i32, y: i32, ring: &[(i32, i32); 16]) -> f32 {
    chess_response_at_u8(img, w, x, y, ring)
}

/// The row kernel, private there. The SIMD build has another in its place.
#[cfg(not(feature = "simd"))]
#[allow(clippy::too_many_arguments)]
pub fn row(
    img: &[u8],
    w: usize,
    y: i32,
    ring: &[(i32, i32); 16],
    out: &mut [f32],
    x_start: usize,
    x_end: usize,
) {
    compute_row_range_scalar(img, w, y, ring, out, x_start, x_end);
}

/// `ResponseStencil::add_gradient` on a tile of `side` by `side` samples and
/// a gradient grid of the same side, both with their first cell at (0, 0).
///
/// A tile of the Rust always has an odd side. An even one is put into the
/// next odd one, which the offsets of the stencil do not notice, since the
/// grid keeps the side asked for. The grid is private in uncertainty.rs; its
/// derived `Debug` prints the shortest digits that give each number back.
pub fn add_gradient(
    ring: &[(i32, i32); 16],
    side: usize,
    samples: &[u8],
    x: i32,
    y: i32,
    scale: [f32; 2],
    before: &[[f32; 2]],
) -> Vec<[f32; 2]> {
    let wide = side | 1;
    let mut image = vec![0u8; wide * wide];
    for row in 0..side {
        image[row * wide..row * wide + side]
            .copy_from_slice(&samples[row * side..(row + 1) * side]);
    }
    let view = crate::ImageView::from_u8_slice(wide, wide, &image).expect("a square");
    let reach = (wide / 2) as i32;
    let mut tile = PixelTile::default();
    tile.load(&view, [reach, reach], reach);
    let mut grads = PixelGradients::default();
    grads.reset([0, 0], side);
    for (k, v) in before.iter().enumerate() {
        grads.add_at(k, *v);
    }
    let stencil = ResponseStencil::new(ring, &tile, &grads);
    stencil.add_gradient(&tile, x, y, scale, &mut grads);
    let text = format!("{grads:?}");
    let numbers = text.split("grad: ").nth(1).expect("the grid is printed");
    let flat: Vec<f32> = numbers
        .split(|c: char| "[], }".contains(c))
        .filter(|part| !part.is_empty())
        .map(|part| part.parse().expect("a number"))
        .collect();
    flat.chunks_exact(2).map(|g| [g[0], g[1]]).collect()
}

/// A tile of an odd side and its gradient grid, for many calls.
pub struct Gradients {
    ring: [(i32, i32); 16],
    tile: PixelTile,
    grads: PixelGradients,
    stencil: ResponseStencil,
}

impl Gradients {
    pub fn of(ring: &[(i32, i32); 16], side: usize, samples: &[u8]) -> Self {
        let view = crate::ImageView::from_u8_slice(side, side, samples).expect("a square");
        let reach = (side / 2) as i32;
        let mut tile = PixelTile::default();
        tile.load(&view, [reach, reach], reach);
        let mut grads = PixelGradients::default();
        grads.reset([0, 0], side);
        let stencil = ResponseStencil::new(ring, &tile, &grads);
        Gradients {
            ring: *ring,
            tile,
            grads,
            stencil,
        }
    }

    /// With the stencil that was made before.
    pub fn add(&mut self, x: i32, y: i32, scale: [f32; 2]) {
        self.stencil
            .add_gradient(&self.tile, x, y, scale, &mut self.grads);
    }

    /// With a stencil of its own.
    pub fn add_anew(&mut self, x: i32, y: i32, scale: [f32; 2]) {
        ResponseStencil::new(&self.ring, &self.tile, &self.grads).add_gradient(
            &self.tile,
            x,
            y,
            scale,
            &mut self.grads,
        );
    }
}
