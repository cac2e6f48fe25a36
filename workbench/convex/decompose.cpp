// Cuts a closed surface into convex pieces, exactly: decompose IN OUT.
//
// IN:  the number of points and of faces; three whole numbers for each point; for each face how many corners it has, and
//      their numbers. Faces are wound outwards.
// OUT: for each piece a line `piece` with its numbers of points and faces; its points as fractions; its faces as in IN.
// Status: 0; 3 open; 4 crosses itself; 5 unreadable; 6 CGAL refuses it.
#include <CGAL/Exact_predicates_exact_constructions_kernel.h>
#include <CGAL/Nef_polyhedron_3.h>
#include <CGAL/Polygon_mesh_processing/connected_components.h>
#include <CGAL/Polygon_mesh_processing/orient_polygon_soup.h>
#include <CGAL/Polygon_mesh_processing/orientation.h>
#include <CGAL/Polygon_mesh_processing/polygon_soup_to_polygon_mesh.h>
#include <CGAL/Polygon_mesh_processing/self_intersections.h>
#include <CGAL/Polygon_mesh_processing/triangulate_faces.h>
#include <CGAL/Polyhedron_3.h>
#include <CGAL/convex_decomposition_3.h>
#include <fstream>
#include <iostream>
#include <map>
#include <vector>

using Kernel = CGAL::Exact_predicates_exact_constructions_kernel;
using Surface = CGAL::Polyhedron_3<Kernel>;
using Nef = CGAL::Nef_polyhedron_3<Kernel>;
namespace processing = CGAL::Polygon_mesh_processing;

static void write(std::ostream& out, const Surface& piece) {
    out << "piece " << piece.size_of_vertices() << " " << piece.size_of_facets() << "\n";
    std::map<const void*, std::size_t> number;
    for (auto vertex = piece.vertices_begin(); vertex != piece.vertices_end(); ++vertex) {
        const auto& at = vertex->point();
        out << at.x().exact() << " " << at.y().exact() << " " << at.z().exact() << "\n";
        number.emplace(&*vertex, number.size());
    }
    for (auto facet = piece.facets_begin(); facet != piece.facets_end(); ++facet) {
        out << facet->facet_degree();
        auto corner = facet->facet_begin();
        do out << " " << number[&*corner->vertex()];
        while (++corner != facet->facet_begin());
        out << "\n";
    }
}

// What lies within the shells that look outwards, without what lies within those that look inwards.
static Nef solid_in(const Surface& surface) {
    std::vector<Surface> shells;
    processing::split_connected_components(surface, shells);
    Nef solid(Nef::EMPTY), hollow(Nef::EMPTY);
    for (auto& shell : shells) {
        const bool outwards = processing::is_outward_oriented(shell);
        if (!outwards) processing::reverse_face_orientations(shell);
        if (outwards && shells.size() == 1) return Nef(shell);
        if (outwards) solid += Nef(shell);
        else hollow += Nef(shell);
    }
    return solid - hollow;
}

static int decompose(const char* from, const char* to) {
    std::ifstream in(from);
    std::size_t points_wanted = 0, faces_wanted = 0;
    in >> points_wanted >> faces_wanted;
    std::vector<Kernel::Point_3> points;
    std::vector<std::vector<std::size_t>> faces(faces_wanted);
    for (long x, y, z; points.size() < points_wanted && in >> x >> y >> z;) points.emplace_back(x, y, z);
    for (auto& face : faces) {
        std::size_t corners = 0;
        in >> corners;
        face.resize(corners);
        for (auto& corner : face) in >> corner;
    }
    if (!in || points.size() < points_wanted) return 5;
    processing::orient_polygon_soup(points, faces);
    Surface surface;
    processing::polygon_soup_to_polygon_mesh(points, faces, surface);
    if (!CGAL::is_closed(surface)) return 3;
    processing::triangulate_faces(surface);
    if (processing::does_self_intersect(surface)) return 4;
    Nef solid = solid_in(surface);
    CGAL::convex_decomposition_3(solid);
    std::ofstream out(to);
    for (auto volume = ++solid.volumes_begin(); volume != solid.volumes_end(); ++volume) {
        if (!volume->mark()) continue;
        Surface piece;
        solid.convert_inner_shell_to_polyhedron(volume->shells_begin(), piece);
        write(out, piece);
    }
    return out.flush() ? 0 : 5;
}

int main(int count, char** words) {
    if (count != 3) return 5;
    try {
        return decompose(words[1], words[2]);
    } catch (const std::exception& fault) {
        std::cerr << fault.what() << "\n";
        return 6;
    }
}
