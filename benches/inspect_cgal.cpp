// The pairs of triangles of a mesh of which CGAL's self_intersections says that they cut one another. The mesh is an OBJ file of whole numbers; it is welded, so that points at
// one place are one vertex, and its flat triangles are left out. Prints "none" where what is left is no polygon mesh of CGAL (an edge of more than two triangles, or several
// fans of triangles at a vertex), and else a line "S T" for each pair, S below T, numbered from 0 as in the file.
#include <CGAL/Exact_predicates_inexact_constructions_kernel.h>
#include <CGAL/Polygon_mesh_processing/polygon_soup_to_polygon_mesh.h>
#include <CGAL/Polygon_mesh_processing/self_intersections.h>
#include <CGAL/Surface_mesh.h>
#include <algorithm>
#include <array>
#include <fstream>
#include <iostream>
#include <map>
#include <sstream>
#include <string>
#include <utility>
#include <vector>

using Kernel = CGAL::Exact_predicates_inexact_constructions_kernel;
using Point = Kernel::Point_3;
using Mesh = CGAL::Surface_mesh<Point>;

struct Welded {
    std::vector<Point> places;
    std::vector<std::array<std::size_t, 3>> triangles;
    std::vector<std::size_t> numbers; // of the triangles, in the file
};

// The mesh of a file, welded, without its flat triangles.
static Welded read(const char* name) {
    Welded mesh;
    std::vector<std::size_t> first; // for each point the vertex at its place
    std::map<std::array<long, 3>, std::size_t> vertices;
    std::ifstream file(name);
    std::string line, word;
    std::size_t number = 0;
    while (std::getline(file, line)) {
        std::istringstream words(line);
        long a, b, c;
        if (!(words >> word >> a >> b >> c)) continue;
        if (word == "v") {
            auto [at, is_new] = vertices.insert({{a, b, c}, mesh.places.size()});
            if (is_new) mesh.places.emplace_back(a, b, c);
            first.push_back(at->second);
        } else if (word == "f") {
            std::array<std::size_t, 3> t = {first.at(a - 1), first.at(b - 1), first.at(c - 1)};
            if (!CGAL::collinear(mesh.places[t[0]], mesh.places[t[1]], mesh.places[t[2]])) {
                mesh.triangles.push_back(t);
                mesh.numbers.push_back(number);
            }
            ++number;
        }
    }
    return mesh;
}

// The same as a polygon mesh, whose faces are the triangles in order; whether it is one.
static bool build(const Welded& welded, Mesh& mesh) {
    if (!CGAL::Polygon_mesh_processing::is_polygon_soup_a_polygon_mesh(welded.triangles)) return false;
    for (const Point& place : welded.places) mesh.add_vertex(place);
    for (const auto& t : welded.triangles) {
        auto face = mesh.add_face(Mesh::Vertex_index(t[0]), Mesh::Vertex_index(t[1]), Mesh::Vertex_index(t[2]));
        if (face == Mesh::null_face()) return false;
    }
    return true;
}

int main(int count, char** words) {
    if (count != 2) {
        std::cerr << "usage: inspect_cgal FILE.obj\n";
        return 2;
    }
    Welded welded = read(words[1]);
    Mesh mesh;
    if (!build(welded, mesh)) {
        std::cout << "none\n";
        return 0;
    }
    std::vector<std::pair<Mesh::Face_index, Mesh::Face_index>> faces;
    CGAL::Polygon_mesh_processing::self_intersections(mesh, std::back_inserter(faces));
    std::vector<std::pair<std::size_t, std::size_t>> pairs;
    for (auto [f, g] : faces) pairs.push_back(std::minmax(welded.numbers[f.idx()], welded.numbers[g.idx()]));
    std::sort(pairs.begin(), pairs.end());
    for (auto [s, t] : pairs) std::cout << s << " " << t << "\n";
}
