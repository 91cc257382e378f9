# Times what Jekyll takes to parse and render the template of a page. `bench/eval` runs it.
#
# usage: ruby bench/eval.rb PAGE TEXT
#
# PAGE is a file of front matter and a template; `includes` of the front matter has the texts of includes, which get a site of
# their own. The text that the template comes to is written to the file TEXT, and the seconds to standard output.
require "fileutils"
require "jekyll"
require "tmpdir"
require "yaml"

page, made = ARGV
Jekyll.logger.log_level = :error
_, front, template = File.read(page).split(/^---\n/, 3)
variables = YAML.safe_load(front)

def now
  Process.clock_gettime(Process::CLOCK_MONOTONIC)
end

Dir.mktmpdir("sitebuild-bench-") do |source|
  (variables["includes"] || {}).each do |name, text|
    path = File.join(source, "_includes", name)
    FileUtils.mkdir_p(File.dirname(path))
    File.write(path, text)
  end
  config = Jekyll.configuration(
    "source" => source, "destination" => File.join(source, "_site"), "quiet" => true,
    "liquid" => { "error_mode" => "strict" }, "disable_disk_cache" => true
  )
  site = Jekyll::Site.new(config)
  payload = site.site_payload
  payload["page"] = variables
  info = { :registers => { :site => site, :page => variables } }
  started = now
  text = site.liquid_renderer.file("page.html").parse(template).render!(payload, info)
  puts now - started
  File.write(made, text)
end
