// Says of a mesh in an OBJ file of four digits what another program would refuse: nothing where it is closed, has no flat triangle and does not cut itself.
#include <CGAL/Exact_predicates_inexact_constructions_kernel.h>
#include <CGAL/Polygon_mesh_processing/orient_polygon_soup.h>
#include <CGAL/Polygon_mesh_processing/polygon_soup_to_polygon_mesh.h>
#include <CGAL/Polygon_mesh_processing/self_intersections.h>
#include <CGAL/Surface_mesh.h>
#include <cmath>
#include <fstream>
#include <iostream>
#include <sstream>
#include <vector>

namespace PMP = CGAL::Polygon_mesh_processing;
typedef CGAL::Exact_predicates_inexact_constructions_kernel Kernel;
typedef Kernel::Point_3 Point;
typedef CGAL::Surface_mesh<Point> Mesh;

int main(int count, char** words) {
    std::ifstream file(words[count - 1]);
    std::vector<Point> points;
    std::vector<std::vector<std::size_t>> faces;
    for (std::string line; std::getline(file, line);) {
        std::istringstream parts(line);
        std::string kind;
        parts >> kind;
        if (kind == "v") {
            double x, y, z;
            parts >> x >> y >> z;
            points.emplace_back(std::nearbyint(x * 10000), std::nearbyint(y * 10000), std::nearbyint(z * 10000));
        } else if (kind == "f") {
            std::vector<std::size_t> face(3);
            for (auto& v : face) {
                parts >> v;
                --v;
            }
            faces.push_back(face);
        }
    }
    for (const auto& face : faces)
        if (CGAL::collinear(points[face[0]], points[face[1]], points[face[2]])) {
            std::cout << "a flat triangle\n";
            return 0;
        }
    if (!PMP::is_polygon_soup_a_polygon_mesh(faces)) {
        std::cout << "no surface without pinched edges or vertices\n";
        return 0;
    }
    Mesh mesh;
    PMP::polygon_soup_to_polygon_mesh(points, faces, mesh);
    if (!CGAL::is_closed(mesh)) std::cout << "open\n";
    else if (PMP::does_self_intersect(mesh)) std::cout << "it cuts itself\n";
    return 0;
}
