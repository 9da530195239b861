<?php
/** Installs a WordPress, fills it, and writes its export to the output: fill.php FOLDER-OF-WORDPRESS */
error_reporting(E_ALL & ~E_DEPRECATED & ~E_WARNING & ~E_NOTICE);
ini_set('display_errors', 'stderr');
$_SERVER['HTTP_HOST'] = 'old.example';
$_SERVER['SERVER_NAME'] = 'old.example';
$_SERVER['SERVER_PROTOCOL'] = 'HTTP/1.1';
$_SERVER['REQUEST_METHOD'] = 'GET';
$_SERVER['REQUEST_URI'] = '/';
define('WP_INSTALLING', true);
require $argv[1] . '/wp-load.php';
require_once ABSPATH . 'wp-admin/includes/upgrade.php';
require_once ABSPATH . 'wp-admin/includes/nav-menu.php';

function wp_mail() { return true; }  // no letter leaves this machine

wp_install('Old Mill Rowing', 'miller', 'miller@old.example', true, '', 'not-a-secret');
update_option('siteurl', 'http://old.example');
update_option('home', 'http://old.example');
global $wp_rewrite;
$wp_rewrite->set_permalink_structure('/%year%/%monthnum%/%postname%/');
delete_option('rewrite_rules');  // made anew at the first request, with those of categories, which weren't there when this began

$people = [];
foreach (['rosa' => 'Rosa Weir', 'tomas' => 'Tomás Økland', 'idle' => 'Idle Hand'] as $login => $name) {
    $people[$login] = wp_insert_user([
        'user_login' => $login, 'user_pass' => 'x' . $login, 'display_name' => $name,
        'user_email' => "$login@old.example", 'role' => 'author',
    ]);
}
$people['miller'] = 1;

$topics = [];
foreach (['Races' => 'Regattas & heads', 'Boats' => '', 'Été à la rame' => 'Summer rowing'] as $name => $about) {
    $topics[$name] = wp_insert_term($name, 'category', ['description' => $about])['term_id'];
}
$topics['Juniors'] = wp_insert_term('Juniors', 'category', ['parent' => $topics['Races']])['term_id'];

function block($html) { return "<!-- wp:paragraph -->\n$html\n<!-- /wp:paragraph -->\n\n"; }

function put($more) {
    $id = wp_insert_post(wp_slash($more + ['post_status' => 'publish', 'post_type' => 'post']), true);
    if (is_wp_error($id)) { fwrite(STDERR, $id->get_error_message() . "\n"); exit(1); }
    return $id;
}

// pages, some below others
$about = put(['post_type' => 'page', 'post_title' => 'About us', 'post_author' => $people['rosa'], 'menu_order' => 1,
    'post_content' => block('<p>We row on the <strong>mill pond</strong> &amp; the river.</p>')
        . "<!-- wp:list -->\n<ul><li>Founded 1931</li><li>Two eights, <em>five</em> fours</li></ul>\n<!-- /wp:list -->\n"
        . block('<p>See <a href="http://old.example/about-us/fees/">the fees</a> or <a href="https://rowing.example/rules">the rules</a>.</p>')]);
$fees = put(['post_type' => 'page', 'post_title' => 'Fees', 'post_parent' => $about, 'post_author' => $people['miller'],
    'post_content' => "<table><tr><th>Who</th><th>A year</th></tr><tr><td>Adults</td><td>120</td></tr><tr><td>Juniors</td><td>40</td></tr></table>"]);
$cafe = put(['post_type' => 'page', 'post_title' => 'Café “Zum Ruder”', 'post_author' => $people['tomas'],
    'post_content' => "A classic page.\nIts second line.\n\nA second paragraph with <script>alert(1)</script> nothing evil.\n\n<blockquote>Row, row.</blockquote>"]);
$user = put(['post_type' => 'page', 'post_title' => 'User', 'post_content' => block('<p>A page whose address is kept by the site.</p>')]);
put(['post_type' => 'page', 'post_title' => 'Not yet', 'post_status' => 'draft', 'post_content' => block('<p>To be written.</p>')]);
put(['post_type' => 'page', 'post_title' => 'Committee', 'post_status' => 'private', 'post_content' => block('<p>For us alone.</p>')]);

// posts
$names = array_keys($topics);
$logins = ['rosa', 'tomas', 'miller'];
for ($n = 1; $n <= 40; $n++) {
    $day = sprintf('%04d-%02d-%02d 10:%02d:00', 2018 + intdiv($n, 8), 1 + $n % 12, 1 + ($n * 7) % 28, $n);
    $html = block("<p>Report number $n: the crew of boat $n came in <em>" . ($n % 5 + 1) . "</em>. It was wet &lt; usual.</p>")
        . block("<p>Line one<br>line two of report $n.</p>");
    $id = put(['post_title' => $n == 3 ? 'Ein Rennen über die Brücke – schön!' : "Race report $n", 'post_author' => $people[$logins[$n % 3]],
        'post_date' => $day, 'post_date_gmt' => $day, 'post_content' => $html, 'post_excerpt' => $n % 4 == 0 ? "In short: report $n." : '',
        'post_category' => [$topics[$names[$n % count($names)]]], 'tags_input' => $n % 2 ? ['wet'] : ['dry', 'fast & furious']]);
    if ($n == 7) { stick_post($id); }
}
put(['post_title' => 'A secret post', 'post_password' => 'quack', 'post_content' => block('<p>Behind a password.</p>')]);
put(['post_title' => 'Coming soon', 'post_status' => 'future', 'post_date' => '2099-01-01 00:00:00', 'post_content' => 'Later.']);
put(['post_title' => 'Thrown away', 'post_status' => 'trash', 'post_content' => 'Gone.']);
put(['post_title' => '', 'post_content' => block('<p>A post without a title.</p>')]);
put(['post_title' => 'A long one', 'post_content' => str_repeat(block('<p>' . str_repeat('oar and blade ', 60) . '</p>'), 100)]);
put(['post_title' => 'With pictures', 'post_content' => "[gallery ids=\"1,2\"]\n\n[caption id=\"x\" width=\"300\"]<img src=\"http://old.example/a.jpg\" alt=\"A boat\" /> The boat[/caption]\n\nAfter the picture."]);
wp_insert_comment(['comment_post_ID' => $about, 'comment_content' => 'Well said', 'comment_author' => 'A reader', 'comment_approved' => 1]);

// a menu with a link below another, a category, and one that leads elsewhere
$menu = wp_create_nav_menu('Top menu');
function link_to($menu, $more) { return wp_update_nav_menu_item($menu, 0, $more + ['menu-item-status' => 'publish']); }
link_to($menu, ['menu-item-title' => 'Home', 'menu-item-url' => 'http://old.example/', 'menu-item-type' => 'custom']);
$top = link_to($menu, ['menu-item-title' => '', 'menu-item-object-id' => $about, 'menu-item-object' => 'page', 'menu-item-type' => 'post_type']);
link_to($menu, ['menu-item-title' => 'What it costs', 'menu-item-object-id' => $fees, 'menu-item-object' => 'page', 'menu-item-type' => 'post_type', 'menu-item-parent-id' => $top]);
link_to($menu, ['menu-item-title' => '', 'menu-item-object-id' => $topics['Races'], 'menu-item-object' => 'category', 'menu-item-type' => 'taxonomy']);
link_to($menu, ['menu-item-title' => 'Café', 'menu-item-object-id' => $cafe, 'menu-item-object' => 'page', 'menu-item-type' => 'post_type']);
link_to($menu, ['menu-item-title' => 'The league', 'menu-item-url' => 'https://league.example/', 'menu-item-type' => 'custom']);

require_once ABSPATH . 'wp-admin/includes/export.php';
wp_set_current_user(1);
export_wp(['content' => 'all']);
